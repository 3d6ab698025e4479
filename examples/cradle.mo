// This model is Newton's cradle with three balls. The balls are linear pendulums, and at each elastic hit two balls
// exchange their speeds.
// Units: the model uses s and m.
// Look at the positions x1, x2 and x3. When one outer ball hits the middle ball, the middle ball hits the other outer
// ball at most 50 ticks (0.2 ms) later. So the middle ball hardly moves between these two hits.
// Plot: tools/qss-plot examples/cradle.mo --names x1,x2,x3
model cradle "Newton's cradle of three"
  parameter Real w2 = 9.81 "g over length";
  Real x1(start = -0.1, unit = "m"), v1, x2(unit = "m"), v2, x3(unit = "m"), v3;
  discrete Real t;
equation
  der(x1) = v1; der(v1) = -w2*x1;
  der(x2) = v2; der(v2) = -w2*x2;
  der(x3) = v3; der(v3) = -w2*x3;
algorithm
  when x1 > x2 then
    t := v1; reinit(v1, v2); reinit(v2, t);
  end when;
  when x2 > x3 then
    t := v2; reinit(v2, v3); reinit(v3, t);
  end when;
  annotation(experiment(StopTime = 4, QSS_CoefBits = 20, QSS_TickBits = 18, QSS_LevelBits = 22, QSS_Quantum = 0.0001220703125, QSS_TimeUnit = "s"));
end cradle;
