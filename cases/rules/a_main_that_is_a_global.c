int main; // error 46
