drives(sensor1, light1).
drives(sensor2, light1).
differ(light1, light2).
differ(light2, light1).
