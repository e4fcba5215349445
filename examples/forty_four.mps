NAME          gen-1-44
OBJSENSE MAX
ROWS
 N  Z
 L  R1
 L  R2
 L  R3
COLUMNS
    MARKER                 'MARKER'                 'INTORG'
    C1        Z                    8   R1                  50
    C1        R2                  24   R3                   9
    C2        Z                   31   R1                  23
    C2        R2                  45   R3                  29
    C3        Z                   24   R1                  10
    C3        R2                  41   R3                  16
    C4        Z                   93   R1                  43
    C4        R2                  38   R3                   4
    C5        Z                   28   R1                  30
    C5        R2                  41   R3                  13
    C6        Z                    4   R1                  20
    C6        R2                  10   R3                   8
    C7        Z                   61   R1                  34
    C7        R2                  50   R3                  29
    C8        Z                   17   R1                  36
    C8        R2                  48   R3                  27
    C9        Z                   13   R1                  18
    C9        R2                  11   R3                  34
    C10       Z                   80   R1                  50
    C10       R2                  30   R3                  22
    C11       Z                   68   R1                  23
    C11       R2                  44   R3                  37
    C12       Z                   86   R1                  46
    C12       R2                  29   R3                  42
    C13       Z                   95   R1                   8
    C13       R2                   2   R3                   4
    C14       Z                    9   R1                  45
    C14       R2                  19   R3                  41
    C15       Z                   25   R1                  47
    C15       R2                  31   R3                   4
    C16       Z                   23   R1                  17
    C16       R2                  50   R3                  25
    C17       Z                    2   R1                   4
    C17       R2                  28   R3                   9
    C18       Z                   29   R1                  34
    C18       R2                  49   R3                  32
    C19       Z                   36   R1                  14
    C19       R2                  16   R3                  15
    C20       Z                   64   R1                  37
    C20       R2                  26   R3                  20
    C21       Z                   16   R1                  45
    C21       R2                  30   R3                   2
    C22       Z                   18   R1                  46
    C22       R2                   6   R3                   5
    C23       Z                   52   R1                  49
    C23       R2                  39   R3                  24
    C24       Z                    6   R1                  33
    C24       R2                   3   R3                  17
    C25       Z                   17   R1                  38
    C25       R2                  39   R3                  45
    C26       Z                    2   R1                  48
    C26       R2                  22   R3                  29
    C27       Z                   38   R1                   9
    C27       R2                  28   R3                  48
    C28       Z                   95   R1                   5
    C28       R2                  10   R3                  32
    C29       Z                   46   R1                  26
    C29       R2                  36   R3                  49
    C30       Z                   43   R1                  50
    C30       R2                  19   R3                  13
    C31       Z                   61   R1                   8
    C31       R2                  45   R3                   9
    C32       Z                   96   R1                  19
    C32       R2                  14   R3                  31
    C33       Z                    7   R1                  13
    C33       R2                  43   R3                  16
    C34       Z                   83   R1                   3
    C34       R2                  18   R3                  22
    C35       Z                   96   R1                  13
    C35       R2                  22   R3                   2
    C36       Z                   91   R1                  32
    C36       R2                  39   R3                   8
    C37       Z                   17   R1                  41
    C37       R2                  41   R3                  30
    C38       Z                   36   R1                   7
    C38       R2                  23   R3                  49
    C39       Z                   96   R1                  20
    C39       R2                   5   R3                  24
    C40       Z                   90   R1                  11
    C40       R2                   6   R3                  27
    C41       Z                   24   R1                   7
    C41       R2                  14   R3                  21
    C42       Z                   39   R1                  45
    C42       R2                  21   R3                  45
    C43       Z                   67   R1                  35
    C43       R2                  27   R3                  45
    C44       Z                   64   R1                  39
    C44       R2                  45   R3                  41
    MARKER                 'MARKER'                 'INTEND'
RHS
    RHS       R1                 615
    RHS       R2                 613
    RHS       R3                 527
BOUNDS
 UP BND       C1                   1
 UP BND       C2                   1
 UP BND       C3                   1
 UP BND       C4                   1
 UP BND       C5                   1
 UP BND       C6                   1
 UP BND       C7                   1
 UP BND       C8                   1
 UP BND       C9                   1
 UP BND       C10                  1
 UP BND       C11                  1
 UP BND       C12                  1
 UP BND       C13                  1
 UP BND       C14                  1
 UP BND       C15                  1
 UP BND       C16                  1
 UP BND       C17                  1
 UP BND       C18                  1
 UP BND       C19                  1
 UP BND       C20                  1
 UP BND       C21                  1
 UP BND       C22                  1
 UP BND       C23                  1
 UP BND       C24                  1
 UP BND       C25                  1
 UP BND       C26                  1
 UP BND       C27                  1
 UP BND       C28                  1
 UP BND       C29                  1
 UP BND       C30                  1
 UP BND       C31                  1
 UP BND       C32                  1
 UP BND       C33                  1
 UP BND       C34                  1
 UP BND       C35                  1
 UP BND       C36                  1
 UP BND       C37                  1
 UP BND       C38                  1
 UP BND       C39                  1
 UP BND       C40                  1
 UP BND       C41                  1
 UP BND       C42                  1
 UP BND       C43                  1
 UP BND       C44                  1
ENDATA
