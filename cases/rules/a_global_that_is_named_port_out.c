int port_out; // error 41

void main() { }
