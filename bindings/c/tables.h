/* The calls on numbers and columns. */
#ifndef TABLES_H
#define TABLES_H

void check_tables(void);

#endif
