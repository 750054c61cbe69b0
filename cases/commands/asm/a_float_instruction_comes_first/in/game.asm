FADD @@@
