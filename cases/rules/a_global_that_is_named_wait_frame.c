int wait_frame; // error 41

void main() { }
