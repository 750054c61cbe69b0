struct T;
struct S {
    T t; // error 47
};
struct T { S s; };

void main() { }
