// This model is an inverted pendulum on a cart, linearized at the upright position. A state feedback, which is sampled
// every 10 ms, keeps the pendulum upright.
// Units: the model uses s, m and rad.
// Look at angle and cart, and at the steps of the control force u.
// Plot: tools/qss-plot examples/pendulum.mo --names angle,cart,u
model pendulum "inverted pendulum with sampled state feedback"
  parameter Real g = 9.81, l = 0.5, M = 1, m = 0.1;
  Real cart(start = 0, unit = "m"), vcart, angle(start = 0.1, unit = "rad"), vangle;
  discrete Real u, clock(start = 0.01);
equation
  der(cart) = vcart;
  der(vcart) = (u - m*g*angle)/M;
  der(angle) = vangle;
  der(vangle) = ((M + m)*g*angle - u)/(M*l);
algorithm
  when time >= clock then
    u := 1*cart + 2.5*vcart + 30*angle + 6*vangle;
    clock := pre(clock) + 0.01;
  end when;
  annotation(experiment(StopTime = 10, QSS_CoefBits = 20, QSS_TickBits = 16, QSS_LevelBits = 22, QSS_Quantum = 0.0001220703125, QSS_TimeUnit = "s"));
end pendulum;
