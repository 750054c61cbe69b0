int main() {
    return 0;
} // error 46
