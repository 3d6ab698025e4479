// A sine of 325 V and 50 Hz: an oscillator of two states that a clock sets anew in each period, so that it never grows.
// Units: ms, V. Look at s: 325 V at 5 ms and 145 ms, and -325 V at 15 ms and 155 ms.
// Plot: tools/qss-plot examples/idioms/sine.mo --names s
model sine "A sine"
  parameter Real A = 325 "V", f = 0.05 "kHz", pi = 3.14159265, w = 2*pi*f;
  Real s(start = 0, unit = "V"), c(start = A, unit = "V");
  discrete Real sync(start = 1/f);
equation
  der(s) = w*c;
  der(c) = -w*s;
algorithm
  when time >= sync then
    reinit(s, 0);
    reinit(c, A);
    sync := pre(sync) + 1/f;
  end when;
  annotation(experiment(StopTime = 160, QSS_CoefBits = 24, QSS_TickBits = 10, QSS_LevelBits = 20, QSS_Quantum = 1/4, QSS_TimeUnit = "ms"));
end sine;
