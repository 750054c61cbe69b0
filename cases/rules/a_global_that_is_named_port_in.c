int port_in; // error 41

void main() { }
