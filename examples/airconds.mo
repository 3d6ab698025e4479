// This model is a population of 200 air conditioners with thermostats in different rooms. It is a load model of the
// literature on quantized state systems.
// Units: the model uses minutes and degrees Celsius.
// Look at count, the number of air conditioners that are on. At first they switch at similar times, and later at more
// and more different times. An air conditioner switches on when the temperature of its room rises above 20.5 degrees.
// A branch whose condition is true at the start does not fire. So in a room that started above 20.5 degrees the air
// conditioner would stay off. Therefore every room starts below 20.5 degrees. Several branches may fire at one tick, so
// the model increases count by 'count := count + 1'. With 'count := pre(count) + 1' only one of these branches would be
// counted.
// Plot: tools/qss-plot examples/airconds.mo --names 'count,theta[1]+theta[100]+theta[200]'
model airconds "population of air conditioners"
  parameter Integer N = 200;
  parameter Real outside = 32, cool = 24;
  Real theta[N](each unit = "degC");
  discrete Real on[N], count;
initial algorithm
  for i in 1:N loop
    theta[i] := 18 + 2.4*i/N;
  end for;
equation
  for i in 1:N loop
    der(theta[i]) = (outside - theta[i] - cool*on[i])/(40 + 40*i/N);
  end for;
algorithm
  for i in 1:N loop
    when theta[i] > 20.5 then
      on[i] := 1;
      count := count + 1;
    elsewhen theta[i] < 19.5 then
      on[i] := 0;
      count := count - 1;
    end when;
  end for;
  annotation(experiment(StopTime = 120, QSS_CoefBits = 24, QSS_TickBits = 10, QSS_LevelBits = 14, QSS_Quantum = 0.0625, QSS_TimeUnit = "min"));
end airconds;
