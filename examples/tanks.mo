// This model is two tanks in a row with linear outflow. A valve in the inflow is switched depending on the height of
// the water in the second tank.
// Units: the model uses s and m.
// Look at the heights h1 and h2, and at valve, which is 1 while the valve is open.
// Plot: tools/qss-plot examples/tanks.mo --names h1+h2,valve
model tanks "two tanks with an on-off valve"
  parameter Real inflow = 0.02, k1 = 0.01, k2 = 0.008;
  Real h1(start = 0.5, unit = "m"), h2(start = 0.2, unit = "m");
  discrete Real valve(start = 1);
equation
  der(h1) = inflow*valve - k1*h1;
  der(h2) = k1*h1 - k2*h2;
algorithm
  when h2 > 1.2 then
    valve := 0;
  elsewhen h2 < 0.8 then
    valve := 1;
  end when;
  annotation(experiment(StopTime = 1500, QSS_CoefBits = 24, QSS_TickBits = 8, QSS_LevelBits = 20, QSS_Quantum = 0.0009765625, QSS_TimeUnit = "s"));
end tanks;
