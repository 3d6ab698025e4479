// A rectified sine of 325 V and 50 Hz: in each half period the oscillator is set anew, so that s is never below 0.
// Units: ms, V. Look at s: 325 V at 5 ms, 15 ms and 25 ms, and 0 between them; no sign is needed.
// Plot: tools/qss-plot examples/idioms/rectified.mo --names s
model rectified "A rectified sine"
  parameter Real A = 325 "V", f = 0.05 "kHz", pi = 3.14159265, w = 2*pi*f;
  Real s(start = 0, unit = "V"), c(start = A, unit = "V");
  discrete Real half(start = 0.5/f);
equation
  der(s) = w*c;
  der(c) = -w*s;
algorithm
  when time >= half then
    reinit(s, 0);
    reinit(c, A);
    half := pre(half) + 0.5/f;
  end when;
  annotation(experiment(StopTime = 80, QSS_CoefBits = 24, QSS_TickBits = 10, QSS_LevelBits = 20, QSS_Quantum = 1/4, QSS_TimeUnit = "ms"));
end rectified;
