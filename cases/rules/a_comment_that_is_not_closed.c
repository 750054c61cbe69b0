void main() { }

/* this comment never ends // error 12
