enum halt { A }; // error 41

void main() { }
