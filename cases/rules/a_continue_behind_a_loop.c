void main() {
    for (; 0; ) ;
    continue; // error 49
}
