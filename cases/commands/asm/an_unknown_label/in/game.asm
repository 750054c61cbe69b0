JMP nowhere
