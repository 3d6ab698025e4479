// This model is a hysteresis control of the current in a half bridge. The current i follows the triangular reference
// ref within a band.
// Units: the model uses us, V, A, Ohm and uH.
// Look at i and ref. The switching frequency changes with the slope of ref.
// Plot: tools/qss-plot examples/hysteresis.mo --names i+ref,s --to 1000
model hysteresis "hysteresis current control"
  parameter Real V = 48 "V", L = 500 "uH", R = 1 "Ohm", band = 0.25 "A";
  Real i(start = 0, unit = "A"), ref(start = 0, unit = "A");
  discrete Real s(start = 1), rise(start = 0.01) "A per us", turn(start = 500);
equation
  der(i) = (V*s - R*i)/L;
  der(ref) = rise;
algorithm
  when i - ref > band then
    s := -1;
  elsewhen i - ref < -band then
    s := 1;
  end when;
  when time >= turn then
    rise := -pre(rise);
    turn := pre(turn) + 1000;
  end when;
  annotation(experiment(StopTime = 4000, QSS_CoefBits = 28, QSS_TickBits = 6, QSS_LevelBits = 20, QSS_Quantum = 0.015625, QSS_TimeUnit = "us"));
end hysteresis;
