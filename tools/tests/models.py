"""Small models and the rows of their runs, worked out by hand."""

BALL = """model ball
  Real y(start = 1), v(start = 0) "speed";
equation
  der(y) = v;
  der(v) = -10;
algorithm
  when y < 0 then
    reinit(v, -0.25*v);
  end when;
  annotation(experiment(StopTime = 1.25, QSS_CoefBits = 4, QSS_TickBits = 2, QSS_LevelBits = 2, QSS_Quantum = 0.25));
end ball;
"""

HEADER = "tick,event,name,level,state\n"

BALL_ROWS = (
    HEADER
    + """0,start,y,4,256
0,start,v,0,0
1,level,v,-10,-640
2,level,y,1,96
2,level,v,-20,-1280
3,when,1.1,,
3,reinit,v,,480
3,level,y,-4,-224
3,level,v,7,480
4,level,y,-2,-112
4,level,v,-3,-160
5,level,v,-13,-800
5,end,y,-2,-160
5,end,v,-13,-800
"""
)

# A switched gain, an array, and algebraic variables: a product, and a third, which has no decimal.
SWITCHED = """model s
  Real x(start = 8), u[2], p, third;
  discrete Real d(start = 1);
equation
  der(x) = p;
  p = d*x;
  third = x/3 + 1;
  for i in 1:2 loop
    der(u[i]) = 0;
  end for;
algorithm
  when x >= 16 then
    d := -1;
  end when;
  annotation(experiment(StopTime = 4, QSS_CoefBits = 0, QSS_TickBits = 0, QSS_LevelBits = 0, QSS_Quantum = 1));
end s;
"""

SWITCHED_ROWS = (
    HEADER
    + """0,start,x,8,8
0,start,u[1],0,0
0,start,u[2],0,0
0,start,d,1,
1,when,1.1,,
1,set,d,-1,
1,level,x,16,16
2,level,x,0,0
4,end,x,0,0
4,end,u[1],0,0
4,end,u[2],0,0
4,end,d,-1,
"""
)

GROWING = (
    "model m Real x(start = 1); equation der(x) = 1000*x; annotation(experiment(StopTime = 10, QSS_CoefBits = 0,"
    " QSS_TickBits = 0, QSS_LevelBits = 0, QSS_Quantum = 1)); end m;\n"
)

GROWING_ROWS = (
    HEADER
    + """0,start,x,1,1
1,level,x,1001,1001
2,level,x,1002001,1002001
3,level,x,1003003001,1003003001
4,level,x,1004006004001,1004006004001
5,overflow,x,,
"""
)

# A run of second order: levels and states in units of 2^-6.
LINE = """model line
  Real x(start = 1);
equation
  der(x) = 0.5;
  annotation(experiment(StopTime = 8, QSS_CoefBits = 0, QSS_TickBits = 0, QSS_LevelBits = 0, QSS_Quantum = 1));
end line;
"""
LINE_ROWS = (
    HEADER
    + """0,start,x,64,64
0,slope,x,32,
4,level,x,192,192
4,slope,x,0,
8,end,x,192,192
"""
)
