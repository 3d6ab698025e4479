// Single-phase bridge rectifier on the 50 Hz mains with a smoothing capacitor and a line resistance, over 50 periods
model bridge
  parameter Real Vp = 325 "V", f = 50 "Hz", pi = 3.14159265, w = 2*pi*f, Rs = 1 "Ohm", C = 1e-3 "F", R = 100 "Ohm";
  Real s(start = 0), c(start = 1), vs(unit = "V"), uC(start = 0, unit = "V"), charge(unit = "A");
  discrete Real pos(start = 0), neg(start = 0);
equation
  der(s) = w*c;
  der(c) = -w*s;
  vs = Vp*s;
  charge = pos*(vs - uC)/Rs - neg*(vs + uC)/Rs;
  der(uC) = (charge - uC/R)/C;
algorithm
  when vs > uC then pos := 1; elsewhen vs < uC then pos := 0; end when;
  when -vs > uC then neg := 1; elsewhen -vs < uC then neg := 0; end when;
  annotation(experiment(StopTime = 1));
end bridge;
