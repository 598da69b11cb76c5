"""What is put into a program to break a rule. NAME stands for any name, the other words in upper case for a name of their sort."""


def texts(listed):
    return [text.strip() for text in listed.replace("\n", " ").split(" | ")]


# After a word that begins a list of statements.
STATEMENTS = texts("""NAME := NAME | NAME := 1 | NAME := true | NAME(NAME) | NAME | NAME.NAME | NAME.NAME(NAME) | NAME[1] := 1 | NAME[NAME] := NAME | NAME.NAME := 1 | init NAME
| init NAME(NAME) | init NAME[1] | init 3 | delay(NAME) | continue(NAME) | delay((NAME)) | continue(NAME[1]) | display(NAME) | display([]) | display() | display(1, 2)
| delay(1) | NAME := NAME + NAME | NAME := NAME = NAME | NAME := not NAME | NAME := - NAME | NAME := [NAME, 1] | NAME := [1, true] | NAME := NAME in NAME | NAME := (NAME)
| NAME := NAME(NAME) | NAME := NAME.NAME | NAME := succ(NAME) | NAME := empty(NAME) | NAME := abs(NAME, 1) | for NAME := 1 to 2 do | for NAME := NAME downto NAME do
| case NAME of 1: end | case 1 of 1: ; 1: end | case NAME of NAME: ; NAME: end | case true of 1: end | while NAME do | if NAME then | repeat until NAME
| "(* assert NAME *)" | "(* assert NAME(1) = 1 *)" | "(* assert NAME.NAME *)" | "(* assert 1 *)" | cycle NAME end | NAME := 32767 + NAME | NAME := ord(NAME)
| NAME := NAME and NAME | NAME := NAME <= NAME | NAME := chr(true) | NAME := [] <= [] | NAME := [] = NAME | NAME := -true | NAME := 'a' + 1 | delay(QUEUE) | continue(QUEUE)
| continue(QUEUE) | init COMPONENT | init COMPONENT, COMPONENT | ENTRY | FUNCTION := 1 | FUNCTION(1) | PROCEDURE := 1 | NAME := PROCEDURE | "(* assert FUNCTION *)"
| "(* assert FUNCTION = FUNCTION *)" | "(* assert NAME[FUNCTION] = NAME *)" | "(* assert not PROCEDURE *)" | "(* assert COMPONENT.FUNCTION *)" | PARAMETER := 1
| PARAMETER := PARAMETER | PARAMETER[1] := 1 | display(FUNCTION) | QUEUE := QUEUE | COMPONENT := COMPONENT | NAME := COMPONENT | NAME := QUEUE | display(QUEUE)
| display(COMPONENT) | COMPONENT.ENTRY | COMPONENT.FUNCTION | COMPONENT.PROCEDURE | delay(NAME.NAME) | display(NAME.NAME) | NAME.NAME(1, 2, 3)""")
# Among the declarations of a block.
DECLARATIONS = texts("""var NAME: NAME; | var z9: NAME; | var z9, z9: integer; | var z9: 2..1; | var z9: NAME..NAME; | var z9: array [NAME] of NAME; | var z9: array [1..2] of NAME;
| var z9: set of NAME; | var z9: set of integer; | var z9: queue; | var z9: array [boolean] of queue; | var z9: record a: NAME end; | var z9: record a, a: integer end;
| var z9: record q: queue end; | type z9 = NAME; | type z9 = (NAME, z8); | type z9 = queue; | type z9 = array [1..9000] of integer;
| type z9 = array [1..2] of array [0..1] of NAME; | type z9 = set of 0..200; | type z9 = set of set of boolean; | const z9 = NAME; | const z9 = -NAME; | const z9 = -'a';
| const NAME = 1; | var z9: 1..true; | var z9: array [integer] of boolean; | var z9: array [0..1] of array [0..8000] of boolean; | var z9: (z8, z8);
| var z9: array [0..1] of array [0..2] of queue; | var z9: set of -1..1; | type z9 = array [NAME] of queue; | var z9: array [queue] of integer;
| var z9: array [0..16] of NAME; | var z9: array [0..70] of NAME;""")
# Before a routine or the body of a block.
ROUTINES = texts("""procedure NAME; begin end; | procedure z9; begin z9 end; | function z9: NAME; begin end; | function z9: boolean; begin z9 := z9 end; | procedure entry z9; begin end;
| procedure z9; begin init NAME end; | procedure z9(NAME: NAME); begin end; | procedure z9(a, a: integer); begin end; | procedure z9(a: queue); begin end;
| procedure z9; begin continue(NAME) end; | procedure z9; begin delay(NAME) end; | function entry z9: boolean; begin continue(NAME) end;
| function z9(var a: integer): integer; begin end; | procedure z9(a: integer); begin a := 1 end; | procedure z9; var z9: NAME; begin end;
| procedure z9(var a: NAME); begin a := NAME end; | procedure entry z9; begin NAME end; | function z9: integer; begin z9[1] := 1 end;
| procedure z9; var q: queue; begin end; | procedure z9; begin z8 end; | procedure z9; begin init COMPONENT end; | function z9: integer; begin init COMPONENT(1) end;
| procedure z9; begin continue(QUEUE) end; | procedure z9; begin delay(QUEUE) end; | function entry z9: boolean; begin continue(QUEUE) end; | procedure z9; begin ENTRY end;
| procedure z9(var a: PARAMETER); begin end; | procedure z9(a: CLASS); begin end; | procedure z9(a: MONITOR); begin end; | procedure z9(a: PROCESS); begin end;
| function z9: CLASS; begin end; | procedure z9; var a: CLASS; begin end; | procedure z9(var a: integer); begin z9(a) end;
| procedure z9(a: integer); begin PROCEDURE(a, a) end; | procedure entry z9; begin delay(QUEUE); "(* assert z9 *)" end;
| procedure z9(var a: integer); begin end; procedure z8; begin z9(1) end; | procedure z9(var a: integer); begin end; procedure z8; begin z9((NAME)) end;
| procedure z9(var a: integer); begin end; procedure z8; begin z9(NAME) end;""")
