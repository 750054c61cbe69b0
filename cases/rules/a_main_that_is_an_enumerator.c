enum E { main }; // error 46
