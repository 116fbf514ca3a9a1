"""The reserved words, by what they are for. The files for editors are made from this table."""

# What begins and ends the parts of a text.
STRUCTURE = ("specification endspec process endproc type endtype library endlib behaviour behavior where is").split()

# Those behind which the name of a definition stands.
DEFINING = "specification process type".split()

# What stands in types.
TYPES = ("sorts opns eqns formalsorts formalopns formaleqns forall ofsort of for using renamedby actualizedby sortnames "
         "opnnames").split()

# What stands in behaviours.
BEHAVIOURS = "stop exit noexit i hide in let choice par accept any".split()

# The signs of behaviours and definitions, the longer ones first.
SIGNS = ("|||", "||", "|[", "]|", "[]", "[>", ">>", ":=", "->", "=>")
