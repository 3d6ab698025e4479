// Sample and hold: a decay of 8 V with a time constant of 4 ms is sampled at each millisecond.
// Units: ms, V. Look at held: 8*exp(-2/4) from 2 ms to 3 ms.
// Plot: tools/qss-plot examples/idioms/sample_hold.mo --names x,held
model sample_hold "Sample and hold"
  parameter Real T = 1 "ms", tau = 4 "ms";
  Real x(start = 8, unit = "V");
  discrete Real held(start = 8, unit = "V"), next(start = T);
equation
  der(x) = -x/tau;
algorithm
  when time >= next then
    held := x;
    next := pre(next) + T;
  end when;
  annotation(experiment(StopTime = 10, QSS_CoefBits = 20, QSS_TickBits = 10, QSS_LevelBits = 20, QSS_Quantum = 1/256, QSS_TimeUnit = "ms"));
end sample_hold;
