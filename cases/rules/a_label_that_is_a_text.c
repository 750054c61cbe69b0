void main() {
    switch (1) {
        case "abc": ; // error 48
    }
}
