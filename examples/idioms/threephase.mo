// Three-phase voltages of 325 V and 50 Hz from one oscillator: the phases are sums of its two states.
// Units: ms, V, A, Ohm, mH. Look at ua, ub and uc, a third of a period apart, and at the current i of the first phase.
// Plot: tools/qss-plot examples/idioms/threephase.mo --names ua,ub,uc
model threephase "Three phases"
  parameter Real A = 325 "V", f = 0.05 "kHz", pi = 3.14159265, w = 2*pi*f, half = 0.5, root = 0.8660254;
  parameter Real R = 10 "Ohm", L = 20 "mH";
  Real s(start = 0, unit = "V"), c(start = A, unit = "V");
  Real ua(unit = "V"), ub(unit = "V"), uc(unit = "V"), i(start = 0, unit = "A") annotation(QSS_Quantum = 1/64);
  discrete Real sync(start = 1/f);
equation
  der(s) = w*c;
  der(c) = -w*s;
  ua = s;
  ub = -half*s - root*c;
  uc = -half*s + root*c;
  der(i) = (ua - R*i)/L;
algorithm
  when time >= sync then
    reinit(s, 0);
    reinit(c, A);
    sync := pre(sync) + 1/f;
  end when;
  annotation(experiment(StopTime = 100, QSS_CoefBits = 24, QSS_TickBits = 10, QSS_LevelBits = 20, QSS_Quantum = 1/4, QSS_TimeUnit = "ms"));
end threephase;
