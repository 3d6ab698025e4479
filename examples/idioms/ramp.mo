// A ramp: a source that rises from 0 V by 2 V/ms from 1 ms to 3.5 ms, and then stays at 5 V.
// Units: ms, V. Look at r: 2 V at 2 ms, 5 V at the end.
// Plot: tools/qss-plot examples/idioms/ramp.mo --names r
model ramp "A ramp"
  parameter Real slope = 2 "V/ms", begin = 1 "ms", finish = 3.5 "ms";
  Real r(start = 0, unit = "V");
  discrete Real rate(start = 0, unit = "V/ms");
equation
  der(r) = rate;
algorithm
  when time >= begin then
    rate := slope;
  end when;
  when time >= finish then
    rate := 0;
  end when;
  annotation(experiment(StopTime = 5, QSS_CoefBits = 20, QSS_TickBits = 10, QSS_LevelBits = 20, QSS_Quantum = 1/256, QSS_TimeUnit = "ms"));
end ramp;
