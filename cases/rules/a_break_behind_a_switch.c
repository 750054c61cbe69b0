void main() {
    switch (1) { }
    break; // error 49
}
