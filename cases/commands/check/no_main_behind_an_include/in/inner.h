int a,
    b;
