// This model is Chua's circuit in normalized form. The characteristic of its nonlinear resistor has three straight
// pieces. The trajectory forms two scrolls and is not periodic.
// Units: time and variables are normalized and have no units.
// Look at y against x. The circuit is chaotic, so two runs with different quanta separate after a time of about 6.
// Plot: tools/qss-plot examples/chua.mo --names y --against x
model chua "Chua's circuit"
  parameter Real alpha = 15.6, beta = 28, m0 = -1.142857, m1 = -0.714286;
  Real x(start = 0.7), y, z, f;
  discrete Real outer(start = 0) "-1, 0 or 1: the piece", slope(start = m0);
equation
  f = slope*x + (m0 - m1)*outer;
  der(x) = alpha*(y - x - f);
  der(y) = x - y + z;
  der(z) = -beta*y;
algorithm
  when x > 1 then
    outer := 1; slope := m1;
  elsewhen x < 1 then
    outer := 0; slope := m0;
  end when;
  when x < -1 then
    outer := -1; slope := m1;
  elsewhen x > -1 then
    outer := 0; slope := m0;
  end when;
  annotation(experiment(StopTime = 40, QSS_CoefBits = 24, QSS_TickBits = 14, QSS_LevelBits = 20, QSS_Quantum = 0.0009765625, QSS_TimeUnit = "1"));
end chua;
