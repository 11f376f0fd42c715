/* The calls on question files. */
#ifndef PAPERS_H
#define PAPERS_H

void check_papers(const char *folder);

#endif
