void main();

int a; // error 46
