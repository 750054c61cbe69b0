void Main() { } // error 46
