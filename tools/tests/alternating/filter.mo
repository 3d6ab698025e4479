// Active rectification: a 400 Hz source of amplitude 28 V feeds a three-pole filter and a clamp at 20 V; 50 periods
model filter
  parameter Real V = 28 "V", f = 400 "Hz", pi = 3.14159265, w = 2*pi*f, R1 = 1000 "Ohm", C1 = 0.1e-6 "F";
  parameter Real R2 = 1000 "Ohm", C2 = 0.1e-6 "F", Rc = 500 "Ohm", Vc = 12 "V";
  Real s(start = 0), c(start = 1), u1(unit = "V"), u2(unit = "V"), clamp(unit = "A");
  discrete Real high(start = 0), low(start = 0);
equation
  der(s) = w*c;
  der(c) = -w*s;
  clamp = high*(u2 - Vc)/Rc + low*(u2 + Vc)/Rc;
  der(u1) = ((V*s - u1)/R1 - (u1 - u2)/R2)/C1;
  der(u2) = ((u1 - u2)/R2 - clamp)/C2;
algorithm
  when u2 > Vc then high := 1; elsewhen u2 < Vc then high := 0; end when;
  when u2 < -Vc then low := 1; elsewhen u2 > -Vc then low := 0; end when;
  annotation(experiment(StopTime = 0.125));
end filter;
