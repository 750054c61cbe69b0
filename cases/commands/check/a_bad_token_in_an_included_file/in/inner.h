#error
int a = 4294967296;
