struct main { int a; }; // error 46
