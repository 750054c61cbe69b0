int main() {
    return y; // error 40
}
