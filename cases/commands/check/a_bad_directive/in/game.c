#pragma once
void main() { }
