#include <video.h> // error 20

void main() { }
