HLT
@
