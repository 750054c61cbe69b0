void main() {
    switch (1) {
        case : ; // error 30
    }
}
