/* A check says where and what when it does not hold; the program goes on, and its status tells. */
#ifndef CHECK_H
#define CHECK_H

#include "turmexol.h"

#define CHECK(holds) check_at(__FILE__, __LINE__, (holds), #holds)

void check_at(const char *file, int line, int holds, const char *what);

#endif
