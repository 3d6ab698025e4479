// Series RLC circuit with a quality factor of 10, driven by a sine at its resonance of 1 kHz, over 50 periods
model resonance
  parameter Real V = 10 "V", f = 1000 "Hz", pi = 3.14159265, w = 2*pi*f, L = 10e-3 "H", R = 6.283185 "Ohm";
  parameter Real C = 2.533030e-6 "F";
  Real s(start = 0), c(start = 1), i(unit = "A"), u(unit = "V");
equation
  der(s) = w*c;
  der(c) = -w*s;
  der(i) = (V*s - R*i - u)/L;
  der(u) = i/C;
  annotation(experiment(StopTime = 0.05));
end resonance;
