// A limiter: y is a sine of 10 V between -6 V and 6 V, and at these limits outside.
// Units: ms, V. Look at x and y: y is 6 V from 2.05 ms to 7.95 ms.
// Plot: tools/qss-plot examples/idioms/limiter.mo --names x,y
model limiter "A limiter"
  parameter Real A = 10 "V", lo = -6 "V", hi = 6 "V", f = 0.05 "kHz", pi = 3.14159265, w = 2*pi*f;
  Real x(start = 0, unit = "V"), c(start = A, unit = "V"), y(unit = "V");
  discrete Real inside(start = 1), limit(start = 0, unit = "V"), sync(start = 1/f);
equation
  der(x) = w*c;
  der(c) = -w*x;
  y = inside*x + limit;
algorithm
  when time >= sync then
    reinit(x, 0);
    reinit(c, A);
    sync := pre(sync) + 1/f;
  end when;
  when x > hi then
    inside := 0;
    limit := hi;
  elsewhen x < hi then
    inside := 1;
    limit := 0;
  end when;
  when x < lo then
    inside := 0;
    limit := lo;
  elsewhen x > lo then
    inside := 1;
    limit := 0;
  end when;
  annotation(experiment(StopTime = 60, QSS_CoefBits = 24, QSS_TickBits = 10, QSS_LevelBits = 20, QSS_Quantum = 1/128, QSS_TimeUnit = "ms"));
end limiter;
