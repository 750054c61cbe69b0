int x = 3;
int[10] many;
int last = 9;

// Two words that no pointer leads to: no room in the frame.
int two(int a, int b)
{
    int c = a + b;
    int d = a - b;
    return c * d;
}

// b is needed behind the call: one word of the frame.
int across(int a)
{
    int b = a + 1;
    two(0, 0);
    return b;
}

// A chain of 30 words, of which one is needed at a time.
int chain(int a)
{
    int v1 = a + 1;
    int v2 = v1 + 2;
    int v3 = v2 + 3;
    int v4 = v3 + 4;
    int v5 = v4 + 5;
    int v6 = v5 + 6;
    int v7 = v6 + 7;
    int v8 = v7 + 8;
    int v9 = v8 + 9;
    int v10 = v9 + 10;
    int v11 = v10 + 11;
    int v12 = v11 + 12;
    int v13 = v12 + 13;
    int v14 = v13 + 14;
    int v15 = v14 + 15;
    int v16 = v15 + 16;
    int v17 = v16 + 17;
    int v18 = v17 + 18;
    int v19 = v18 + 19;
    int v20 = v19 + 20;
    int v21 = v20 + 21;
    int v22 = v21 + 22;
    int v23 = v22 + 23;
    int v24 = v23 + 24;
    int v25 = v24 + 25;
    int v26 = v25 + 26;
    int v27 = v26 + 27;
    int v28 = v27 + 28;
    int v29 = v28 + 29;
    int v30 = v29 + 30;
    return v30;
}

// An array has its words in the frame.
int held(int a)
{
    int[30] v;
    v[a] = 7;
    return v[a];
}

void main()
{
    port_out(GPU_ClearColor, two(7, 3));
    port_out(GPU_ClearColor, across(4));
    port_out(GPU_ClearColor, chain(0));
    port_out(GPU_ClearColor, held(2));
    port_out(GPU_ClearColor, x + many[9] + last);
}
