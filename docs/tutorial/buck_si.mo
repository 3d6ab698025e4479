// The buck converter of the QSS literature: 24 V to 12 V at 10 kHz, as one writes it first, in SI units.
model buck_si "buck converter in seconds, henry and farad"
  parameter Real U = 24 "V", L = 1e-4 "H", C = 1e-4 "F", R = 10 "Ohm";
  parameter Real period = 1e-4 "s", duty = 0.5;
  Real iL(start = 0, unit = "A"), uC(start = 0, unit = "V");
  discrete Real s(start = 1), on(start = period), off(start = period*duty);
equation
  der(iL) = (U*s - uC)/L;
  der(uC) = (iL - uC/R)/C;
algorithm
  when time >= on then
    s := 1;
    on := pre(on) + period;
  end when;
  when time >= off then
    s := 0;
    off := pre(off) + period;
  end when;
  annotation(experiment(StopTime = 0.005));
end buck_si;
