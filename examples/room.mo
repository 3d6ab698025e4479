// This model is a room in which a relay thermostat keeps the temperature between 20 and 22 degrees.
// Units: the model uses minutes and degrees Celsius.
// Look at the temperature room, and at heater, which is 1 while the heater is on.
// Plot: tools/qss-plot examples/room.mo --names room,heater
model room "a room that a heater keeps between 20 and 22 degrees"
  parameter Real outside = 8, loss = 0.0625, power = 1.5;
  Real room(start = 16, unit = "degC");
  discrete Real heater(start = 1);
equation
  der(room) = power*heater - loss*(room - outside);
algorithm
  when room > 22 then
    heater := 0;
  elsewhen room < 20 then
    heater := 1;
  end when;
  annotation(experiment(StopTime = 120, QSS_CoefBits = 20, QSS_TickBits = 14, QSS_LevelBits = 14, QSS_Quantum = 0.015625, QSS_TimeUnit = "min"));
end room;
