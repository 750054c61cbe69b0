#ifndef MINE_H
#define MINE_H
int mine;
#include "mine.h"
#endif
