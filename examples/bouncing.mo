// This model is a ball that falls from a height of 1 m. After each bounce the ball has 80 % of its speed before the
// bounce.
// Units: the model uses s, m and m/s.
// Look at the height y, and at the speed v at each bounce.
// Plot: tools/qss-plot examples/bouncing.mo --names y,v
model bouncing "bouncing ball"
  Real y(start = 1, unit = "m"), v(start = 0, unit = "m/s");
equation
  der(y) = v;
  der(v) = -9.81;
algorithm
  when y < 0 then
    reinit(v, -0.8*v);
  end when;
  annotation(experiment(StopTime = 3, QSS_CoefBits = 20, QSS_TickBits = 14, QSS_LevelBits = 20, QSS_Quantum = 0.0009765625, QSS_TimeUnit = "s"));
end bouncing;
