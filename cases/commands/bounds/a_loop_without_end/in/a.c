void main() { while (true) wait_frame(); }
