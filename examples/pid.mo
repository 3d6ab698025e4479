// This model is a PID controller, which is sampled at 1 kHz, with a plant of second order.
// Units: times are in ms, and the other numbers have no units.
// Look at y and u. The first value of u is large, because the error jumps at the start and the controller has a
// differential part.
// Plot: tools/qss-plot examples/pid.mo --names y,u
model pid "sampled PID controller"
  parameter Real kp = 4, ki = 0.02, kd = 200, Ts = 1 "ms", ref = 1;
  Real y, v, acc annotation(QSS_Quantum = 0.001);
  discrete Real u, e, olde, clock(start = Ts);
equation
  der(y) = v;
  der(v) = 0.0004*(u - y) - 0.02*v;
  der(acc) = 0;
algorithm
  when time >= clock then
    e := ref - y;
    reinit(acc, acc + ki*e);
    u := kp*e + acc + kd/Ts*e - kd/Ts*pre(olde);
    olde := e;
    clock := pre(clock) + Ts;
  end when;
  annotation(experiment(StopTime = 500, QSS_CoefBits = 24, QSS_TickBits = 12, QSS_LevelBits = 24, QSS_Quantum = 0.0001220703125, QSS_TimeUnit = "ms"));
end pid;
