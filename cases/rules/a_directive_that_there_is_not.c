#pragma once // error 20

void main() { }
