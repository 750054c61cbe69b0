#ifndef A
#ifndef B // error 23

void main() { }
