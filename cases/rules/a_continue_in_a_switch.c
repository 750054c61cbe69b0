void main() {
    switch (1) {
        case 1: continue; // error 49
    }
}
