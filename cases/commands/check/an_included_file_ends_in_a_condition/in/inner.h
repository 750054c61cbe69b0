#ifndef A
int a;
