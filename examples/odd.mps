* Forty weights, of which some are to be taken whose sum is 801. All weights are even, so there are none: the
* common divisor of the row tells it at once (--base surrogate), and without it all subsets are searched.
NAME odd
ROWS
 N NOTHING
 E SUM
COLUMNS
 C1   SUM   84
 C2   SUM   76
 C3   SUM   68
 C4   SUM   60
 C5   SUM   52
 C6   SUM   44
 C7   SUM   36
 C8   SUM   28
 C9   SUM   20
 C10  SUM   12
 C11  SUM   86
 C12  SUM   78
 C13  SUM   70
 C14  SUM   62
 C15  SUM   54
 C16  SUM   46
 C17  SUM   38
 C18  SUM   30
 C19  SUM   22
 C20  SUM   14
 C21  SUM   88
 C22  SUM   80
 C23  SUM   72
 C24  SUM   64
 C25  SUM   56
 C26  SUM   48
 C27  SUM   40
 C28  SUM   32
 C29  SUM   24
 C30  SUM   16
 C31  SUM   90
 C32  SUM   82
 C33  SUM   74
 C34  SUM   66
 C35  SUM   58
 C36  SUM   50
 C37  SUM   42
 C38  SUM   34
 C39  SUM   26
 C40  SUM   18
RHS
 RHS  SUM  801
BOUNDS
 BV BND C1
 BV BND C2
 BV BND C3
 BV BND C4
 BV BND C5
 BV BND C6
 BV BND C7
 BV BND C8
 BV BND C9
 BV BND C10
 BV BND C11
 BV BND C12
 BV BND C13
 BV BND C14
 BV BND C15
 BV BND C16
 BV BND C17
 BV BND C18
 BV BND C19
 BV BND C20
 BV BND C21
 BV BND C22
 BV BND C23
 BV BND C24
 BV BND C25
 BV BND C26
 BV BND C27
 BV BND C28
 BV BND C29
 BV BND C30
 BV BND C31
 BV BND C32
 BV BND C33
 BV BND C34
 BV BND C35
 BV BND C36
 BV BND C37
 BV BND C38
 BV BND C39
 BV BND C40
ENDATA
